# The parser of R. It has the tokens in front of an error. Prints `?` for a text that ends before its first token.
parsed <- function(text, ...) tryCatch(suppressWarnings(parse(text = text, ...)), error = function(it) NULL)

judge <- function(text) {
    file <- srcfilecopy("", text)
    parsed(text, srcfile = file, keep.source = TRUE)
    data <- getParseData(file)
    data <- data[data$terminal, ]
    if (NROW(data) == 0) return("?")
    first <- data[order(data$line1, data$col1)[1], ]
    if (first$token != "NUM_CONST") return("-")
    value <- c(parsed(substr(text, 1, first$col2), keep.source = FALSE), NA)[[1]]
    paste(first$col2, if (is.numeric(value)) sprintf(if (is.integer(value)) "%d" else "%a", value) else if (!is.complex(value)) "-")
}

writeLines(vapply(readLines(file("stdin")), judge, ""))
