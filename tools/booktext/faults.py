"""What is wrong with an input, as messages ready to be shown."""


class Fault(Exception):
    """One or more messages, a line each."""

    def __init__(self, *messages: str) -> None:
        super().__init__(*messages)
        self.messages = messages


class Faults:
    """Gathers faults, so that one run shows all of them: `with faults:` keeps the fault raised inside."""

    def __init__(self) -> None:
        self.messages: list[str] = []

    def __enter__(self) -> None:
        pass

    def __exit__(self, _kind: object, fault: object, _trace: object) -> bool:
        if not isinstance(fault, Fault):
            return False
        self.messages += fault.messages
        return True

    def settle(self) -> None:
        """Raises what was gathered, if anything."""
        if self.messages:
            raise Fault(*self.messages)
