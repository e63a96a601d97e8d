"""The parts of `grade`, which marks what students hand in by every end that their programs can have."""
