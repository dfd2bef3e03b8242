"""The template tags of the app `silkwaram` of Django."""
