"""Scripts and what mqroute answers to them: commands, outputs, topics, the program itself."""
