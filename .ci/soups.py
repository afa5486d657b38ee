"""Parts of random texts that are hard for a tokenizer: tags, comments, doctypes, references and odd characters."""

PARTS = """
<p> </p> <b> <a href=x> <a href='x'b="y"> <i x=y x=z> </b x> <br/> </p/> <svg> <svg/> <math> <script> </script> <!-- --> <style> </style> <title>
</title> <textarea> </textarea> <plaintext> <div =x> <div x"y=z> <div x=y'z> <div x=> <div x='y> <div/x> < </ <? <?x> <! <!-- <!--> <!---> <!----!>
<!--a--!> <!--<!-- <!--- --> <![CDATA[ ]]> <!doctype> <!doctype html> <!DOCTYPE> <!doctypehtml> <!doctype\thtml\tpublic> <!doctype_html_public"x">
<!doctype_html_public_'x''y'> <!doctype_html_system"x> <!doctype_html_x> <!doctype_html_system_'x'_y> & &amp; &amp &ampx &#; &#x; &#0; &#x110000;
&#xD800; &#xFFFF; &#128; &#65 &#x41; &nosuch; &nosuch &notit; &not &not= x= = " ' ` / > \0 \x01 \x7f \x80 \x0b \ufdd0 \ufffe \U0001ffff é 😀 \r\n \r \n \t
word x <!- <![CDA <!doct <!doctype_html_pub <!doctype_html_sys &noti &ltci <svg><title> <math><mi>
""".split()


def parts():
    """The parts: of the words above, `_` is a space, and what is escaped is meant."""
    return [part.replace("_", " ").encode("latin-1", "backslashreplace").decode("unicode_escape") for part in PARTS] + [" ", "\n"]
