#!/bin/sh
# Runs the debug adapter, which is on the path.
exec l6ed dap
