"""What a proposed access list would change, tried on a log or a script: everything in one."""
