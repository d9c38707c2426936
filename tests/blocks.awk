# Prints the code blocks of a document. LANG=sh: its commands as one script, which prints @@ after each block. LANG=text: what
# they should print, in the same form. LANG=c: the blocks of C.
/^```/ && !inside { inside = 1; lang = substr($0, 4); if (lang == "sh" && LANG == "text" && begun++) print "@@"; next }
/^```/ { inside = 0; if (lang == "sh" && LANG == "sh") print "echo @@"; next }
inside && lang == LANG
END { if (LANG == "text" && begun) print "@@" }
