"""What is said of a fault that ends a call or the work at a file: of files, disks and this package."""
import errno
import os
import traceback

import handref
from handref import texts

_ROOM = (errno.ENOSPC, errno.EDQUOT, errno.EROFS, errno.EFBIG)


def bug(fault: BaseException) -> str:
    """The line of a fault that nothing here expects: what it is, where, and of which version."""
    own = os.path.dirname(__file__) + os.sep
    place = next((f"{frame.filename[len(own):]}, line {frame.lineno}"
                  for frame in reversed(traceback.extract_tb(fault.__traceback__))
                  if frame.filename.startswith(own)), "?")
    return f"a bug of handref {handref.__version__}: {type(fault).__name__} ({place})"


def why(fault: OSError) -> str:
    """Why something is not done with a file whose name is said before."""
    return (fault.strerror or str(fault)).lower()


def no_room(fault: OSError) -> bool:
    """Whether there is no room for what is written, for this file as for each other one."""
    return fault.errno in _ROOM


def of_file(fault: OSError) -> tuple[str, int]:
    """The line and the status of a file that was not read or not written."""
    name = texts.shown(str(fault.filename)) if fault.filename else ""
    if no_room(fault):
        is_stream = fault.errno == errno.ENOSPC and not name
        return "write fault" if is_stream else \
            (f"{name}: " if name else "") + f"write fault: {why(fault)}", 6
    return f"{name}: {fault.strerror}" if name and fault.strerror else texts.shown(str(fault)), 5

