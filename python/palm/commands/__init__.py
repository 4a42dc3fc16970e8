"""The commands of the package: `palm-solve`, `palm-script` and `minimal-none`."""
