"""Roles, properties, activities and environments as elements."""

import xml.etree.ElementTree as ET

from ldimport.properties import KINDS
from ldimport.report import Report

from .completion import Completion
from .folder import Folder, Json
from .resources import Resources
from .tree import Texts, add, hidden

TAGS = {kind: tag for tag, kind in KINDS.items()}
BOUNDS = ("minInclusive", "maxInclusive", "minLength", "maxLength")


class Components:
    def __init__(self, folder: Folder, report: Report, resources: Resources, completion: Completion) -> None:
        self.folder, self.report, self.resources, self.completion = folder, report, resources, completion
        self.texts = Texts(report)

    def write(self, design: ET.Element) -> None:
        components = add(design, "components")
        roles = add(components, "roles")
        for role in self.folder.roles:
            self.role(roles, role, role["kind"])
        if self.folder.properties or self.folder.groups:
            properties = add(components, "properties")
            for property in self.folder.properties:
                self.property(properties, property)
            for group in self.folder.groups:
                self.group(properties, group)
        activities = add(components, "activities")
        for activity in self.folder.activities:
            self.activity(activities, activity)
        for structure in self.folder.structures:
            self.structure(activities, structure)
        if self.folder.environments:
            environments = add(components, "environments")
            for environment in self.folder.environments:
                self.environment(environments, environment)

    def role(self, parent: ET.Element, role: Json, kind: str) -> None:
        element = add(
            parent,
            kind,
            identifier=role["identifier"],
            create_new=role.get("create-new"),
            match_persons=role.get("match-persons"),
            min_persons=role.get("min-persons"),
            max_persons=role.get("max-persons"),
        )
        self.texts.title(element, role)
        for inner in role.get("roles", []):
            self.role(element, inner, kind)

    def property(self, parent: ET.Element, property: Json) -> None:
        element = add(parent, TAGS[property["kind"]], identifier=property["identifier"])
        if "role" in property:
            add(element, "role-ref", ref=property["role"])
        body = add(element, "global-definition", uri=property["uri"]) if "uri" in property else element
        self.texts.title(body, property)
        add(body, "datatype", datatype=property["datatype"])
        if "initial" in property:
            self.texts.value(add(body, "initial-value"), property["initial"])
        restrictions = property.get("restrictions", {})
        for word in BOUNDS:
            if word in restrictions:
                add(body, "restriction", restriction_type=word).text = str(restrictions[word])
        for text in restrictions.get("enumeration", []):
            self.texts.value(add(body, "restriction", restriction_type="enumeration"), text)

    def group(self, parent: ET.Element, group: Json) -> None:
        element = add(parent, "property-group", identifier=group["identifier"])
        self.texts.title(element, group)
        for member in group["members"]:
            add(element, self.folder.references[member], ref=member)

    def activity(self, parent: ET.Element, activity: Json) -> None:
        kind = activity.get("kind", "learning")
        element = add(parent, f"{kind}-activity", identifier=activity["identifier"], isvisible=hidden(activity))
        self.texts.title(element, activity)
        for member in ("learning-objectives", "prerequisites"):
            self.resources.container(element, member, activity.get(member, []))
        for role in activity.get("supports", []):
            add(element, "role-ref", ref=role)
        if activity.get("repeated") is False:
            told = "a package has no support activity that is done once for all"
            self.report.plain("changed", "repeated", told, "activities.json", 0, activity["identifier"])
        self.environment_refs(element, activity)
        self.resources.container(element, "activity-description", activity.get("items", []))
        self.completion.write(element, activity, "activity")

    def environment_refs(self, element: ET.Element, obj: Json) -> None:
        for environment in obj.get("environments", []):
            add(element, "environment-ref", ref=environment)

    def structure(self, parent: ET.Element, structure: Json) -> None:
        element = add(
            parent,
            "activity-structure",
            identifier=structure["identifier"],
            structure_type=structure["kind"],
            number_to_select=structure.get("number-to-select"),
            isvisible=hidden(structure),
        )
        self.texts.title(element, structure)
        self.environment_refs(element, structure)
        for child in structure["children"]:
            add(element, self.folder.references[child], ref=child)

    def environment(self, parent: ET.Element, environment: Json) -> None:
        element = add(parent, "environment", identifier=environment["identifier"], isvisible=hidden(environment))
        self.texts.title(element, environment)
        for obj in environment.get("learning-objects", []):
            name = obj["identifier"]
            inner = add(element, "learning-object", identifier=name, isvisible=hidden(obj), **{"class": name})
            self.texts.title(inner, obj)
            self.resources.items(inner, obj.get("items", []))
        for service in environment.get("services", []):
            self.service(element, service)
        self.environment_refs(element, environment)

    def service(self, parent: ET.Element, service: Json) -> None:
        """A service with the settings that its import left in import.json, where it has such."""
        name = service["identifier"]
        element = add(parent, "service", identifier=name, isvisible=hidden(service), **{"class": name})
        found = self.folder.record.get("services", {}).get(name)
        inner = add(element, service["kind"])
        self.texts.title(inner, service)
        if found is None:
            told = "who takes part, and how, is not said here; a package has to say it"
            self.report.plain("note", "service-settings", told, "environments.json", 0, name)
        else:
            self.settings(inner, found)

    def settings(self, element: ET.Element, found: Json) -> None:
        """The attributes and elements of a service; its title and items stand in the documents."""
        renamed = self.folder.record.get("renamed", {})
        for attribute, value in found.get("attributes", {}).items():
            element.set(attribute, renamed.get(value, value))
        element.text = found.get("text")
        for child in found.get("children", []):
            if child["element"] not in ("title", "item"):
                self.settings(add(element, child["element"]), child)
