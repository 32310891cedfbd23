"""How the Python libraries are installed that some commands need beside the standard one."""
import sys

# The package of Debian, and the one of pip, by the module.
PACKAGES = {
    "jinja2": ("python3-jinja2", "jinja2"), "matplotlib": ("python3-matplotlib", "matplotlib"),
    "openpyxl": ("python3-openpyxl", "openpyxl"), "odf": ("python3-odf", "odfpy"),
}
# Where the Python of Debian is installed, the one alone that has its packages.
OF_DEBIAN = "/usr"


def install(module: str) -> str:
    """What to do for a module that is not installed, by the Python that runs."""
    package, of_pip = PACKAGES[module.partition(".")[0]]
    if sys.base_prefix == OF_DEBIAN == sys.prefix:
        return f"install it: apt install {package}"
    return (f"install it: apt install {package} for the Python of Debian, and for this one "
            f"{sys.executable} -m pip install {of_pip}")
