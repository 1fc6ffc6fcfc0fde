"""`python3 -m office WORD ..`."""
import sys

from office.command import main

sys.exit(main())
