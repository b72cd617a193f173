"""Gives the graphs of ten examples, and of the tables of each, to Graphviz, which has to read as many nodes and edges as the text has."""
import re

from tests import support
from tests.support import EXAMPLES, Case, output_of

NAMES = ["words", "c", "json", "log", "ini", "csv", "http", "markdown", "sql", "toml"]
QUICK_LAYOUT = ["-Gnslimit=1", "-Gnslimit1=1", "-Gmaxiter=1", "-Gsplines=false"]


def counts_of(graph):
    """Returns the numbers of nodes and of edges in the text of a graph."""
    nodes = set(re.findall(r"^    (?!node )(\w+)(?: \[shape|;)", graph, re.M))
    return len(nodes), len(re.findall(r"^    \w+ -> ", graph, re.M))


def counts_by_graphviz(graph):
    ended = support.run("dot", "-Tplain", *QUICK_LAYOUT, input=graph, text=True)
    if ended.returncode or ended.stderr:
        return f"dot ends with {ended.returncode}: {ended.stderr[:1_000]}"
    return len(re.findall(r"^node ", ended.stdout, re.M)), len(re.findall(r"^edge ", ended.stdout, re.M))


class Graphs(Case):
    def test_examples(self):
        support.tool("dot")
        for name in NAMES:
            specification = EXAMPLES / f"{name}.l"
            tables = output_of("gen", specification, text=True)
            graph = output_of("show", "--all", specification, text=True)
            self.expect(name, counts_by_graphviz(graph), counts_of(graph))
            graph = output_of("show", "--all", "-", input=tables, text=True)
            self.expect(f"tables of {name}", counts_by_graphviz(graph), counts_of(graph))


if __name__ == "__main__":
    support.main()
