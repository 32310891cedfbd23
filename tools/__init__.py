"""The code of `./workbook`: everyday tools around the proved program, which alone judges."""
