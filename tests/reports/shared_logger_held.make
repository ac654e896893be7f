#!/bin/sh
# the source shared_logger_held.abs among those of the pairs
exec cat "$(dirname "$0")/../pairs/shared_logger_held.abs"
