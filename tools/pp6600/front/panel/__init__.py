"""The panel: the live machine on a full screen."""
