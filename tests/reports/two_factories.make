#!/bin/sh
# the source two_factories.abs among the trees
exec cat "$(dirname "$0")/../trees/two_factories.abs"
