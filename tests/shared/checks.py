"""Counts the checks of a test script that pass, and collects a line for each one that fails."""


class Checks:
    """The results of a test script: the number of passed checks, and a line for each failed one."""

    def __init__(self):
        self.passed, self.failures = 0, []

    def check(self, holds, *message):
        """Records that a check passed if `holds` is true. Otherwise records a failure, whose line is `message`, joined
        by colons."""
        if holds:
            self.passed += 1
        else:
            self.failures.append(": ".join(map(str, message)))
        return bool(holds)

    def ended(self, description, result, status=0, says=""):
        """Checks that a command ended with this exit status and that its output contains `says`. `result` is the result
        of `process.run`, and `description` describes the command in the failure. Returns the output."""
        actual_status, output = result
        expected = f"{status} and {says!r}" if says else status
        holds = actual_status == status and says in output
        self.check(holds, f"{description}: exit status {actual_status}, expected {expected}: {output[-800:]}")
        return output

    def same(self, actual, expected, description):
        """Checks that two values are equal. `description` names the value in the failure, which shows the first
        300 characters of both."""
        return self.check(actual == expected, f"{description}: got {actual!r:.300}, expected {expected!r:.300}")

    def end(self):
        """Prints the failures and the line `N passed, M failed`. Returns the exit status of the script: 1 after a
        failure."""
        for failure in self.failures:
            print(f"FAILED: {failure}")
        print(f"{self.passed} passed, {len(self.failures)} failed")
        return 1 if self.failures else 0
