#!/bin/sh
# the source shared_logger.abs among those of the pairs
exec cat "$(dirname "$0")/../pairs/shared_logger.abs"
