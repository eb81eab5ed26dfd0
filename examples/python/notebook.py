# %% [markdown]
# # Whose file is it?
# This is a file tree as in the GNU Hurd: any user may attach a program of their own, a *translator*, to a file of theirs. That program then serves whoever opens the file.
# Here alice reads a file of bob's, and then bob attaches a translator to it. We look at the replies that she gets, at what she learns, and at a picture.

# %% A script says who the users are, besides root, and then what each of them does. `run` shows each command, and its reply below it.
import shutil
import subprocess

import hurd

script = """\
user alice 1000 1000
user bob 1001 1001
root mkdir /tmp
root chmod 1777 /tmp
bob put /tmp/news rain
alice cat /tmp/news
"""
print(hurd.run(script))

# %% Bob attaches a translator to his file. Alice runs the same command as before, and reads something else.
script += """\
bob settrans /tmp/news /hurd/hello --contents=sun
alice cat /tmp/news
"""
print(hurd.run(script))

# %% She can see that there is a translator, and which words made it. She can't remove it: it is bob's file.
script += """\
alice showtrans /tmp/news
alice settrans -g /tmp/news
"""
print(hurd.run(script))

# %% What alice learns: below each command by others is what she can find out after it by commands of her own, and could not before. Each line of a reply has the mark `| `, an error `! `.
print(hurd.learn(script, "alice"))

# %% The picture of the end. What is yellow alice can read. A dashed blue arrow leads from a file to the translator that serves it.
def show(picture: str) -> None:
    """Shows a picture: in a notebook as Graphviz lays it out, where its program `dot` is there; else as text."""
    if "get_ipython" in globals() and shutil.which("dot"):
        from IPython.display import SVG, display

        display(SVG(subprocess.run(["dot", "-Tsvg"], input=picture.encode(), stdout=subprocess.PIPE, check=True).stdout))
    else:
        print(picture)


show(hurd.draw(script, "alice"))
