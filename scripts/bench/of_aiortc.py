"""Times reading with aiortc, as from_c.c does from C:   of_aiortc.py BATCHES FILE.."""
import batches
from aiortc.sdp import SessionDescription

batches.show({"aiortc": SessionDescription.parse})
