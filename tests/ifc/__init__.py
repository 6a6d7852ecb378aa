"""Writers of IFC files: `basics` has what each of them begins and ends with, the other modules the
files, by what is in them."""
