"""The command: python3 -m poddreshi."""
import sys

from . import commandline, commands


def main() -> int:
    return commandline.main(commands.all_commands())


if __name__ == "__main__":
    sys.exit(main())
