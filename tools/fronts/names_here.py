"""In a process that is given this, the names of a domain lead to 127.0.0.1, as a line of the DNS would say."""
import os
import socket


def lead(domain):
    known = socket.getaddrinfo

    def asked(host, *rest, **more):
        return known("127.0.0.1" if str(host).endswith("." + domain) else host, *rest, **more)

    socket.getaddrinfo = asked


def lead_in(folder, domain):
    """The variables by which each Python of other people's programs begins so; they have a file in a folder."""
    with open(os.path.join(folder, "sitecustomize.py"), "w", encoding="utf-8") as file:
        file.write(f"import sys\nsys.path.append({os.path.dirname(os.path.abspath(__file__))!r})\n"
                   f"import names_here\nnames_here.lead({domain!r})\n")
    return {"PYTHONPATH": folder, "PYTHONDONTWRITEBYTECODE": "1"}
