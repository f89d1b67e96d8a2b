"""What the scripts of this folder share. It stands beside the proved program: no verdict rests on any of it."""
