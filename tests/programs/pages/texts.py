"""Texts that would be markup or script, if they became a part of a page."""

# Names of a label before instructions, of one among them, and of a word; and a text for the console.
HOSTILE = [b"</script><script>document.title='broken'</script>",
           b"<!--<script>&lt;&#60;\"'\\\"</title></style><img src=x onerror=document.title='broken'>",
           b"\xe2\x80\xa8\xe2\x80\xae\x01\n\x7f\xff%3Cscript%3E\\u003c/script\\u003e]]>"]
CONSOLE = b"</pre></script><svg/onload=document.title='broken'>\n\x1b[31m\xff&lt;b&gt;--><!--"
