"""What the programs tools/view, tools/replay, tools/hunt and tools/browser-table are made of."""
