"""What the planner's tools share: flat problems, settings, GasLib's files, and how a script says that an input is wrong."""
