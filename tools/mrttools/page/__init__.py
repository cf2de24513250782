"""Reports and pictures: the facts of an area, what a change would do, and how they are shown."""
