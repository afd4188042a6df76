"""The version of this package, which is that of the library it needs."""

__version__ = "0.7.1"


def number_of(version: str) -> int:
    """Give a version as the library has it: 10000 major + 100 minor + patch.

    >>> number_of("0.7.0")
    700
    """
    major, minor, patch = (int(part) for part in version.split("."))
    return 10000 * major + 100 * minor + patch


def text_of(number: int) -> str:
    """Give a number of the library as a version.

    >>> text_of(700)
    '0.7.0'
    """
    return f"{number // 10000}.{number // 100 % 100}.{number % 100}"
