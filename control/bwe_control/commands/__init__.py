"""The commands of bwe-control: each module has one, under the module's name."""
