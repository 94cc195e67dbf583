"""The literal calculator: a link, and the answers to a stream of commands, straight from their definitions.

It is no part of the product and shares nothing with it. Each file holds one concept and is to be read beside its formal
definition: plain loops, no kept state. A link is a function of the project alone (`link.link`); an edit changes
nothing but the project.
"""
