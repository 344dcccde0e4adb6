\name{homerange_program}
\alias{homerange_program}
\title{Which Program Is Run}
\description{Finds the program \code{homerange} that \code{\link{home_range}} runs.}
\usage{
homerange_program(...)
}
\arguments{
  \item{...}{nothing: arguments that there are not are refused}
}
\details{
The first of these counts: the file that \code{options(homerange.program = "...")} names; the file that the environment's
\code{HOMERANGE} names; the program that came with the installed package, in its folder \file{bin}, as it does where the package
was installed from a clone of homerange's repository; \file{release/homerange} of the clone whose folder \file{r} the package was
loaded from; \code{homerange} on \code{PATH}. The working folder, and folders above it, are never looked in. A program that came
with the package is held to its checksum at each call. The programs \code{homerange-split} and \code{homerange-page} are those that lie beside it.
}
\value{The path of the program.}
\section{Errors}{
Where there is no program, the one that is named is not there, or the package's own has another checksum, the call
stops with an error of class \code{homerange_program_error}.
}
\examples{
tryCatch(homerange_program(), homerange_program_error = conditionMessage)
}
