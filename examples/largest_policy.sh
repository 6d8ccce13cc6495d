#!/bin/sh
# Prints a policy with as many rows as there may be of each array (16 agents), just under 1 MB.
awk 'BEGIN {
  for (i = 1; i <= 64; i++) printf "[[client]]\nname = \"client%d\"\n", i
  for (i = 1; i <= 16; i++) printf "[[agent]]\nname = \"agent%d\"\ntakes = [\"kernel\", \"agent\"]\n", i
  for (i = 1; i <= 64; i++) printf "[[region]]\nname = \"region%d\"\nlength = 1048576\n", i
  for (i = 1; i <= 1024; i++) printf "[[signal]]\nname = \"signal%d\"\ninitial = %d\n", i, i
  pad = ""
  for (i = 1; i <= 9300; i++) pad = pad "."
  for (i = 1; i <= 64; i++) {
    printf "[[kernel]]\nname = \"kernel%d\"\nentry = \"&k\"\ntext = \"\"\"\n", i
    printf "module &m:1:0:$base:$large:$default;\nprog kernel &k()\n{\n  ret;\n};\n// %s\n\"\"\"\n", pad
  }
  for (i = 1; i <= 4096; i++)
    printf "[[allow]]\nclient = \"client%d\"\nkind = \"signal\"\nobject = \"signal%d\"\nrights = [\"WAIT\", \"CHANGE\"]\n", (i % 64) + 1, (i % 1024) + 1
}'
