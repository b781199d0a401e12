"""Tools around `smplan`: they show plans, explain refusals, and carry documents and reports from one command to the next.

The program `smplan` decides; nothing that it promises rests on this package.
"""
__version__ = "1.0"
