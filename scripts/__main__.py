"""One of the commands by its name: python3 -m scripts explain BUNDLE"""

from scripts.commands import start_named

if __name__ == "__main__":
    start_named()
