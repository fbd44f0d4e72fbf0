"""`python3 -m bsdudp_conform`: the command bsdudp-conform."""
import sys

from ._main import main

sys.exit(main())
