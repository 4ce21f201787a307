"""The companions of adsd, one package: a folder for each, and folders and modules that several share. No part of it rests
on one that rests on it (tools/test/layers). Nothing here is proved; rights are answers of the program."""
