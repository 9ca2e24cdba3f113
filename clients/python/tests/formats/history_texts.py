"""What several tests need, also those of tools that read histories: texts from lines, and what is read from them."""
import io

from rb_broker_formats.history import History
from rb_broker_formats.reader import read_history

# A run behind another, in which each kind of call stands. Elements 0 and 2 are there at the start; 2 is the second
# attempt of a job whose first one is not in the text.
RUN = """history 3
open 3 100 2
keep 0 90 0 90 1 a
keep 2 150 1 120 2 b
1 100 100 offer 3 100 3 100 1 c
2 120 120 poll 0
2 110 120 take 3
1 160 160 size 1
1 160 160 offer 4 300 3 100 2 c
2 170 170 pollfor 160 10 2
2 170 170 poll none
1 200 200 peek 4
1 200 200 remove 9 no
1 310 310 drain 5 4
1 310 310 clear
end 11
"""


def text_of(*events: str) -> str:
    """The text, in the third version, of a run that began with an empty queue."""
    return "\n".join(["history 3", "open 0 0 0", *events, f"end {len(events)}", ""])


def read(text: str) -> History:
    return read_history(io.BytesIO(text.encode()))


def offer(id: int, expiry: int, payload: str = "a", at: int = 0) -> str:
    """The line of a first attempt."""
    return f"1 {at} {at} offer {id} {expiry} {id} {expiry} 1 {payload}"
