"""Made by bindings/declare from crates/libvobrekan/src."""
from typing import Any

from .bounds import Numbers

VB_DONE: int
VB_UNKNOWN: int
VB_NAME_TAKEN: int
VB_HAS_CONTAINER: int
VB_NOT_CHILD: int
VB_ALIAS_PARENT: int
VB_LOOP: int
VB_TOO_DEEP: int
VB_TOO_WIDE: int
VB_BAD_SIZE: int
VB_BAD_OPS: int
VB_WRONG_KIND: int
VB_NO_TRANSACTION: int
VB_TOO_NESTED: int
VB_IN_USE: int
VB_PAGE_OVERLAP: int
VB_BAD_PAGE: int
VB_LIMIT_REACHED: int
VB_NO_BACKING: int
VB_HELD: int
VB_EVENT_TAKEN: int
VB_MEMORY: int
VB_ARGUMENT: int
VB_NO_MACHINE: int
VB_HAS_MACHINE: int
VB_NO_SCRIPT: int
VB_NOT_WHOLE: int
VB_NO_CPU: int
VB_CONTENDED: int
VB_NOT_ENTERED: int
VB_SORT_REGION: int
VB_SORT_SPACE: int
VB_SORT_LISTENER: int
VB_SORT_WATCHER: int
VB_SORT_ENTRY: int
VB_SORT_EVENT: int
VB_LIMIT_REGIONS: int
VB_LIMIT_MADE: int
VB_LIMIT_SPACES: int
VB_LIMIT_LISTENERS: int
VB_LIMIT_ENTRIES: int
VB_LIMIT_EVENTS: int
VB_LIMIT_CALLS: int
VB_LIMIT_WATCHERS: int
VB_KIND_CONTAINER: int
VB_KIND_RAM: int
VB_KIND_ROM: int
VB_KIND_ROM_DEVICE: int
VB_KIND_IO: int
VB_KIND_IOMMU: int
VB_KIND_ALIAS: int
VB_KIND_RESERVE: int
VB_KIND_HOST: int
VB_DEVICE_LATCH: int
VB_DEVICE_COUNT: int
VB_DEVICE_BELL: int
VB_DEVICE_FAULT: int
VB_DO_BEGIN: int
VB_DO_COMMIT: int
VB_DO_LISTEN: int
VB_DO_UNLISTEN: int
VB_DO_REGION: int
VB_DO_SPACE: int
VB_DO_ADD: int
VB_DO_DEL: int
VB_DO_MOVE: int
VB_DO_RESIZE: int
VB_DO_RETARGET: int
VB_DO_ENABLE: int
VB_DO_READONLY: int
VB_DO_NONVOLATILE: int
VB_DO_UNMERGEABLE: int
VB_DO_ROMD: int
VB_DO_LOG: int
VB_DO_GLOBAL: int
VB_DO_MAP: int
VB_DO_UNMAP: int
VB_DO_EVENT: int
VB_DO_UNEVENT: int
VB_DO_DROP: int
VB_CLIENT_DISPLAY: int
VB_CLIENT_CODE: int
VB_CLIENT_MIGRATION: int
VB_PERM_NOTHING: int
VB_PERM_READ: int
VB_PERM_WRITE: int
VB_PERM_BOTH: int
VB_ACCESS_ERROR: int
VB_ACCESS_DECODE: int
VB_ACCESS_BEGUN: int
VB_WAY_CHUNKS: int
VB_WAY_QEMU: int
VB_REACHED_MEMORY: int
VB_REACHED_CALLBACK: int
VB_REACHED_NOTIFIER: int
VB_REACHED_MARK: int
VB_REACHED_NOTHING: int
VB_TOLD_BEGIN: int
VB_TOLD_DELETE: int
VB_TOLD_ADD: int
VB_TOLD_KEEP: int
VB_TOLD_LOG_START: int
VB_TOLD_LOG_STOP: int
VB_TOLD_EVENT_ADD: int
VB_TOLD_EVENT_DEL: int
VB_TOLD_COMMIT: int

class vb_machine(Numbers):
    at: Any
    def __init__(self, at: Any = ...) -> None: ...

class vb_desk(Numbers):
    at: Any
    def __init__(self, at: Any = ...) -> None: ...

class vb_cpu(Numbers):
    at: Any
    def __init__(self, at: Any = ...) -> None: ...

class vb_answer(Numbers):
    code: int
    what: int
    value: int
    other: int
    def __init__(self, code: int = ..., what: int = ..., value: int = ..., other: int = ...) -> None: ...

class vb_device(Numbers):
    kind: int
    regs: int
    valid_min: int
    valid_max: int
    valid_unaligned: bool
    impl_min: int
    impl_max: int
    impl_unaligned: bool
    big: bool
    def __init__(self, kind: int = ..., regs: int = ..., valid_min: int = ..., valid_max: int = ..., valid_unaligned: bool = ..., impl_min: int = ..., impl_max: int = ..., impl_unaligned: bool = ..., big: bool = ...) -> None: ...

class vb_ioevent(Numbers):
    offset: int
    value: int
    number: int
    size: int
    matched: bool
    def __init__(self, offset: int = ..., value: int = ..., number: int = ..., size: int = ..., matched: bool = ...) -> None: ...

class vb_order(Numbers):
    offset: int
    size: int
    translated: int
    what: int
    kind: int
    region: int
    other: int
    space: int
    listener: int
    client: int
    perm: int
    priority: int
    on: bool
    device: vb_device
    event: vb_ioevent
    def __init__(self, offset: int = ..., size: int = ..., translated: int = ..., what: int = ..., kind: int = ..., region: int = ..., other: int = ..., space: int = ..., listener: int = ..., client: int = ..., perm: int = ..., priority: int = ..., on: bool = ..., device: vb_device = ..., event: vb_ioevent = ...) -> None: ...

class vb_flat_range(Numbers):
    start: int
    last: int
    offset: int
    region: int
    log: int
    readonly: bool
    nonvolatile: bool
    romd: bool
    unmergeable: bool
    def __init__(self, start: int = ..., last: int = ..., offset: int = ..., region: int = ..., log: int = ..., readonly: bool = ..., nonvolatile: bool = ..., romd: bool = ..., unmergeable: bool = ...) -> None: ...

class vb_found(Numbers):
    last: int
    offset: int
    region: int
    kind: int
    log: int
    readonly: bool
    nonvolatile: bool
    romd: bool
    unmergeable: bool
    is_there: bool
    def __init__(self, last: int = ..., offset: int = ..., region: int = ..., kind: int = ..., log: int = ..., readonly: bool = ..., nonvolatile: bool = ..., romd: bool = ..., unmergeable: bool = ..., is_there: bool = ...) -> None: ...

class vb_reached(Numbers):
    offset: int
    value: int
    at: int
    len: int
    what: int
    region: int
    number: int
    size: int
    takes: bool
    big: bool
    def __init__(self, offset: int = ..., value: int = ..., at: int = ..., len: int = ..., what: int = ..., region: int = ..., number: int = ..., size: int = ..., takes: bool = ..., big: bool = ...) -> None: ...

class vb_live_event(Numbers):
    distance: int
    value: int
    number: int
    size: int
    matched: bool
    is_below: bool
    def __init__(self, distance: int = ..., value: int = ..., number: int = ..., size: int = ..., matched: bool = ..., is_below: bool = ...) -> None: ...

class vb_listener_call(Numbers):
    what: int
    listener: int
    range: vb_flat_range
    event: vb_live_event
    to: int
    def __init__(self, what: int = ..., listener: int = ..., range: vb_flat_range = ..., event: vb_live_event = ..., to: int = ...) -> None: ...

FUNCTIONS: dict[str, tuple[list[Any], Any]]
