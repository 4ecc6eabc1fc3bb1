"""`ason` from Python, for studies.

    import ason

    run = ason.run(open("examples/two.toml").read())
    for call in run.table.calls:
        print(call.name, call.state, call.cause)

`run` answers the process's status, the tables of each `show` and of the end, and the `unsettled` lines. `decode`
answers what is told of lines of RSVP messages, `route` the least route between two nodes and its backup, `survey` what
each risk group would hit in the run's last table and which calls would contend.
`plan_of_graph` makes a plan of a graph of networkx; the `text` of a plan is what `run` and `route` take. The program is
the one that the environment variable ASON names, or the one that the script `ason` of this repository has built. Put
the folder of this file into PYTHONPATH.
"""

from ason_tools.errors import ToolError
from ason_tools.graphs import plan_of_graph
from ason_tools.plan import Link, Node, Plan
from ason_tools.program import (
    DONE,
    EVENT_LIMIT,
    PLAN_REFUSED,
    TOO_LONG,
    Run,
    decode,
    route,
    run,
    survey,
)
from ason_tools.routes_told import Route, Routes
from ason_tools.surveys import Contend, Hit, Survey
from ason_tools.tables import (
    Call,
    Hold,
    Leg,
    Lsp,
    Message,
    NoMessage,
    ObjectLine,
    Output,
    Refused,
    Stopped,
    Table,
    Unsettled,
    read,
)

__all__ = [
    "DONE",
    "EVENT_LIMIT",
    "PLAN_REFUSED",
    "TOO_LONG",
    "Call",
    "Contend",
    "Hit",
    "Hold",
    "Leg",
    "Link",
    "Lsp",
    "Message",
    "NoMessage",
    "Node",
    "ObjectLine",
    "Output",
    "Plan",
    "Refused",
    "Route",
    "Routes",
    "Run",
    "Stopped",
    "Survey",
    "Table",
    "ToolError",
    "Unsettled",
    "decode",
    "plan_of_graph",
    "read",
    "route",
    "run",
    "survey",
]
