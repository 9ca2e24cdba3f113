"""python3 -m rb_broker_redis: see `command`."""
import sys

try:
    import hiredis  # noqa: F401
    from redis import RedisError  # noqa: F401  not `import redis`: a folder of that name would do for it
except ImportError:
    sys.exit("rb_broker_redis: this needs redis-py and hiredis, Debian's python3-redis and python3-hiredis")

from .command import main

if __name__ == "__main__":
    sys.exit(main())
