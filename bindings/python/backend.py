"""What pip asks for a wheel of this folder (PEP 517). bindings/python/wheel makes it, without any other package."""
import subprocess
import sys
from pathlib import Path
from typing import Any, Optional

_WHEEL = Path(__file__).resolve().parent / "wheel"


def build_wheel(wheel_directory: str, config_settings: Any = None, metadata_directory: Optional[str] = None) -> str:
    """Makes the wheel in this folder: its name."""
    ran = subprocess.run([sys.executable, str(_WHEEL), wheel_directory], check=True, stdout=subprocess.PIPE, text=True)
    return Path(ran.stdout.rstrip("\n")).name


def build_sdist(sdist_directory: str, config_settings: Any = None) -> str:
    """There is none: the program and the library are made by a kit of their own."""
    raise NotImplementedError("dicomdir has no source distribution: make a wheel")
