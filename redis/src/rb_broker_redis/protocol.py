"""What gateways need of the protocol."""
from rb_broker_formats.durations import SECOND as SECOND
from rb_broker_formats.protocol import (
    GREATEST_NUMBER as GREATEST_NUMBER, MOST_ATTEMPTS as MOST_ATTEMPTS, MOST_CALLS as MOST_CALLS, MOST_HELD as MOST_HELD,
    ErrorReply as ErrorReply,
)
