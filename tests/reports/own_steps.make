#!/bin/sh
# the source own_steps.abs among those of the pairs
exec cat "$(dirname "$0")/../pairs/own_steps.abs"
