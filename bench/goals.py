"""Whether figures are as they should be on four idle cores, for the benchmarks that have --check."""


class Goals:
    """The figures that missed their goals."""

    def __init__(self):
        self.missed = []

    def most(self, what, figure, goal):
        """Takes a figure that should be at most its goal."""
        if not figure <= goal:
            self.missed.append(f"{what}: {figure:,.2f}, and {goal:,.2f} at most is wanted")

    def least(self, what, figure, goal):
        """Takes a figure that should be at least its goal."""
        if not figure >= goal:
            self.missed.append(f"{what}: {figure:,.2f}, and {goal:,.2f} at least is wanted")

    def status(self):
        """Prints which figures missed their goals, and returns the status of the script."""
        for it in self.missed:
            print(f"missed: {it}")
        return int(bool(self.missed))
