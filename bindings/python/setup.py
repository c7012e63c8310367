# What pip needs to build with the setuptools that are there, without a network: setup.cfg has the rest.
from setuptools import setup

setup()
