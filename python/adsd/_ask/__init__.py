"""Messages and filters as `tools/adsd_tools/forms` writes them: beside this file in the wheel, and in the tree where they stand."""

import os

_HERE = os.path.dirname(os.path.abspath(__file__))
if not os.path.exists(os.path.join(_HERE, "ber.py")):
    __path__.append(os.path.normpath(os.path.join(_HERE, "../../../tools/adsd_tools/forms")))
