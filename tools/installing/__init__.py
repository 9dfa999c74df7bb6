"""What is installed, and make, which installs it: for check-install, check-package and check-run."""
