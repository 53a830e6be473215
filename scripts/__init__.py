"""The scripts beside vpc: explain, lines, picture, plan-bundle and survey."""
