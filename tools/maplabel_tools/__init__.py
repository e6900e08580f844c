"""What the tools for makers of maps share: fonts, making styles, places of names, the report."""
