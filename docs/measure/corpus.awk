BEGIN { OFS = "\t"
  split("the of and merger bank debt company report annual notes board memo acquisition old new market price share value interest rate loan credit asset equity capital bond fund risk tax audit budget plan policy review summary quarter year growth loss profit margin revenue cost expense cash flow ledger account invoice payment order supply demand client partner vendor contract clause term notice letter draft final version copy section chapter index table figure note source author title date", w, " "); n = length(w)
  print "SQCORPUS 1"
  print "property", "title", "text", "s"; print "property", "body", "text", "s"; print "property", "author", "text", "-"
  print "property", "filetype", "text", "-"; print "property", "size", "integer", "r"; print "property", "write", "datetime", "-"
  print "property", "public", "yesno", "-"; print "property", "tags", "text", "sm"
  print "caller", "Ann", "staff"; print "caller", "Bob", "staff", "board"
  s = 12345
  for (i = 1; i <= 200000; i++) {
    print "item", i, i % 1000, "http://s/" i
    print "allow", "staff"; print "deny"
    print "value", "title", word() " " word() " " i
    t = word(); for (k = 1; k < 15; k++) t = t " " word()
    print "value", "body", t
    print "value", "author", word() " Smith"; print "value", "filetype", "docx"
    print "value", "size", i * 7; print "value", "write", "2024-02-29T12:00:00Z"
    print "value", "public", (i % 2 ? "true" : "false")
    print "value", "tags", word(); print "value", "tags", word()
  }
}
function word() { s = (s * 1103515245 + 12345) % 2147483648; return w[int(s / 65536) % n + 1] }
