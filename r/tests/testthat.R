# Runs the tests of the package.
library(testthat)
library(homerange)

test_check("homerange")
