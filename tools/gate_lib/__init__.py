"""What tools/gate is made of: must-fail edits tried together, each judged by the function that it changes."""
