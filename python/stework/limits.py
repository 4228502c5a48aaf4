"""The program's limits, each once. What is beyond one of them is reported in Python, before anything is run."""

MOST_VARIABLES = 4_000                 # of a task file
MOST_NESTING = 100                     # `!` and brackets within one another, of an expression
MOST_TIME = 100_000                    # the time step at which an assertion ends
MOST_VERTICES = 1_000                  # of a graph
MOST_EDGES = 10_000                    # of a graph
MOST_TASKS = 256                       # of a task file
MOST_STEPS = 16_000_000                # node steps, of all tasks of a file together
MOST_WORKERS = 64                      # threads of one run of the program
MOST_CUBES = 64                        # shown of a list
MOST_NETS = 200_000                    # of a netlist

MOST_CHARACTERS = 1_000_000            # of one expression: this package's own limit, so that none is written without end
